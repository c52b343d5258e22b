#include <stdio.h>

/* 999,999 steps: two declarations, two assignments, 333,332 conditions, 333,331 turns of two steps, and the return. */
int main() {
    int i;
    int s;
    s = 0;
    for (i = 0; i < 333331; i++) {
        s = s ^ i;
    }
    return s == 1;
}
