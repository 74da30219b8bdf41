int main(int x) {
    int r = 0;
    if (10 < x) r = 1;
    if (x < 5) r = 2;
    return r;
}
