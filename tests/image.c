/* What a pole unit links: a program that asks for the region of a place, and for nothing else. It stands alone, with no C library. */
#include "krzewido.h"

krz_grid grid;
krz_place place;
krz_located located;

void image(void)
{
    located = krz_region(grid, place);
}
