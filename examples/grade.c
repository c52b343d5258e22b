#include <stdio.h>

/* Prints 1 where a mark is a pass and 0 where it isn't. */
int main() {
    int mark;
    scanf("%d", &mark);
    if (mark > 50) // wrong: a mark of exactly 50 is a pass
        printf("%d", 1);
    else
        printf("%d", 0);
    return 0;
}
