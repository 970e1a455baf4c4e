/* Whether the speed brake extends after touchdown: it is armed, both main gear legs carry weight or
   the wheels turn faster than 60 knots, and no thrust lever stands above 10 degrees. */
int speed_brake(int armed, int left_leg, int right_leg, int wheel_speed, int lever) {
  return armed && (left_leg && right_leg || 60 < wheel_speed) && !(10 < lever);
}
