int main(int x) {
    if (x == 0) return 1;
    else {
        x = x + 1;
        x = x - 2;
    }
    return x;
}
