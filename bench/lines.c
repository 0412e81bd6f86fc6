/* The yardstick of replay.py: reads lines and prints them. */
#include <stdio.h>

int main(void) {
    static char line[65536];
    static char in[1 << 16], out[1 << 16];
    setvbuf(stdin, in, _IOFBF, sizeof in);
    setvbuf(stdout, out, _IOFBF, sizeof out);
    while (fgets(line, sizeof line, stdin))
        fputs(line, stdout);
    return 0;
}
