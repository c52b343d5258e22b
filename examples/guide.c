#include <stdio.h>

/* A group of 10 or more gets a guide: prints 1 where a guide is due, and nothing where none is. */
int main() {
    int group;
    scanf("%d", &group);
    if (group > 10) // wrong: a group of 10 is large enough
        printf("%d", 1);
    return 0;
}
