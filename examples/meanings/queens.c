/* The ways to place eight queens. */
_Bool column[8], up[15], down[15];
int place(int row) {
  if (row == 8) return 1;
  int ways = 0;
  for (int c = 0; c < 8; c++) {
    if (column[c] || up[row + c] || down[row - c + 7]) continue;
    column[c] = up[row + c] = down[row - c + 7] = 1;
    ways += place(row + 1);
    column[c] = up[row + c] = down[row - c + 7] = 0;
  }
  return ways;
}
int main(void) { return place(0); }
