// A controller of a heater: each byte of the input is a temperature in degrees, and for each one the power that the
// heater is set to is put out on a line, 0 to 100 percent. It acts on the error and on the sum of the errors, and the
// sum stands still while the power is at its limit. Readings of 0 and 255 are those of a broken sensor: the heater is
// switched off, and the status is 1.
int getchar(void);
int putchar(int c);

enum { WANTED = 60, BY_ERROR = 24, BY_SUM = 2, SCALE = 16, MOST = 100 };

static void put_number(int n) {
    if (n >= 10) put_number(n / 10);
    putchar('0' + n % 10);
}

static void put_power(int power) {
    put_number(power);
    putchar('\n');
}

static int power_at(int temperature, int *sum) {
    int error = WANTED - temperature;
    int power = (BY_ERROR * error + BY_SUM * (*sum + error)) / SCALE;
    if (power < 0) return 0;
    if (power > MOST) return MOST;
    *sum += error;
    return power;
}

int main(void) {
    int sum = 0;
    for (int c = getchar(); c != -1; c = getchar()) {
        if (c == 0 || c == 255) {
            put_power(0);
            return 1;
        }
        put_power(power_at(c, &sum));
    }
    return 0;
}
