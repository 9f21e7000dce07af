/* && and || evaluate the second operand only where it decides, and are 0 or 1. */
int t(int v) { putchar('a' + v); return v; }
void bit(int b) { putchar('0' + b); putchar(' '); }
int main(void) {
  bit(t(0) && t(1));
  bit(t(1) && t(2));
  bit(t(2) && t(0));
  bit(t(1) || t(0));
  bit(t(0) || t(2));
  bit(t(0) || t(0));
  bit(t(0) && t(1) || t(2));
  bit(t(1) || t(0) && t(0));
  bit((t(1) || t(0)) && t(0));
  bit(!(t(0) || t(0)) && t(3));
  int zero = 0, *none = NULL;
  bit(zero && 1 / zero);
  bit(1 || 1 / zero);
  bit(none && *none);
  bit(!none || *none);
  return 0;
}
