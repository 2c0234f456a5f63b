# A script with a mark after each event: the lines of mark. The cards of a DECK stay together.

cards > 0 { cards--; print; if (cards == 0) print mark; next }
/^DECK / { cards = $3 + 0; print; if (cards == 0) print mark; next }
/^$|^\*/ { print; next }
{ print; print mark }
