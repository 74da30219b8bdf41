# 1 "filter.c"
# 1 "<built-in>"
extern int sample[4];
extern int mode;
static int clamp(int v)
{
    if (v > 100)
        return 100;
    if (v < -100)
        return -100;
    return v;
}
int main(void)
{
    int sum = 0;
    int i;
    int c = 0;
#pragma loopbound 4
    for (i = 0; i < 4; i++) {
        c = clamp(sample[i]);
        if (mode == 1)
            sum += c;
        if (mode == 2)
            sum -= c;
    }
    return sum;
}
