/* Copies the input to the output, byte by byte. */
int getchar(void);
int putchar(int);

int main(void) {
    int c;
    while ((c = getchar()) != -1)
        putchar(c);
    return 0;
}
