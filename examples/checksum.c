// The checksum of the input, CRC-16/CCITT-FALSE, as four hexadecimal digits and the end of the line.
// It is the sum that guards many telemetry frames. Of "123456789" it is 29b1.
int getchar(void);
int putchar(int c);

static void put_digit(unsigned digit) { putchar(digit < 10 ? '0' + digit : 'a' + digit - 10); }

// The sum with one more byte, bit by bit, the highest first.
static unsigned add(unsigned sum, unsigned byte) {
    sum ^= byte << 8;
    for (int bit = 0; bit < 8; bit++) sum = (sum & 0x8000 ? sum << 1 ^ 0x1021 : sum << 1) & 0xffff;
    return sum;
}

int main(void) {
    unsigned sum = 0xffff;
    for (int c = getchar(); c != -1; c = getchar()) sum = add(sum, c);
    for (int shift = 12; shift >= 0; shift -= 4) put_digit(sum >> shift & 15);
    putchar('\n');
    return 0;
}
