int main(int n) {
    int i = 0;
#pragma loopbound 10
    while (i < n) i++;
    return i;
}
