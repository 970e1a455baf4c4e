/* Two vanes measure the angle of attack. `^`, `|` and `&` look at both, so neither hides what the other says. */
int disagree(int left, int right, _Bool ground) {
  return ((left > 14) ^ (right > 14)) && !ground;
}
int stall(int left, int right, _Bool ground) {
  return ((left > 14) | (right > 14)) & !ground;
}
