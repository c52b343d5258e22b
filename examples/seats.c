#include <stdio.h>

/* A cable car has 8 seats. Prints 1 where a group fits into it, 0 where it doesn't. */
int main() {
    int group;
    int seated;
    scanf("%d", &seated);
    scanf("%d", &group);
    if ((seated + group) < 8) // wrong: off by one, the eighth seat is a seat, too
        printf("%d", 1);
    else
        printf("%d", 0);
    return 0;
}
