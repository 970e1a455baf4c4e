/* Whether the door alert sounds: a door is open and the aircraft moves. */
int door_alert(int open, int speed) {
  return open && 0 < speed;
}
