// A median filter: each byte of the input is a sample, and for each one the median of the last five is put out.
// A sample that is far off, as a disturbed sensor gives it now and then, leaves no trace.
int getchar(void);
int putchar(int c);

enum { WINDOW = 5 };

static unsigned char window[WINDOW];

// The middle one of the samples of the window, which are sorted on the way.
static unsigned char median(void) {
    unsigned char sorted[WINDOW];
    for (int i = 0; i < WINDOW; i++) {
        int at = i;
        for (; at > 0 && sorted[at - 1] > window[i]; at--) sorted[at] = sorted[at - 1];
        sorted[at] = window[i];
    }
    return sorted[WINDOW / 2];
}

int main(void) {
    int c = getchar();
    // The first sample stands for those before it.
    for (int i = 0; i < WINDOW; i++) window[i] = c;
    for (int next = 0; c != -1; next = (next + 1) % WINDOW) {
        window[next] = c;
        putchar(median());
        c = getchar();
    }
    return 0;
}
