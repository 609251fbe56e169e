/* The tables that the take-down and the OBJ text are measured on, each with what counting must find in it. */
#ifndef BENCH_SHAPES_H
#define BENCH_SHAPES_H

#include "table.h"

typedef struct {
    Table table;
    unsigned solids, edges, rings, holes;
} Shape;

/* A quad lifted n times: a side face for each edge of the top at each lift. Root, that is least face, is the top. */
Shape tower(unsigned n, uint16_t cap);

/* A prism of n corners: two long loops and many short ones. */
Shape prism(unsigned n, uint16_t cap);

/* n corners and two faces, one on each side: as many vertices as edges, and two long loops. */
Shape sheet(unsigned n, uint16_t cap);

/* A torus of n times n quads. When the faces are gone a long loop is left that must be cut to get at the one hole. */
Shape torus(unsigned n, uint16_t cap);

/* n handles in a row, all in one loop: at each of n vertices two edges from the vertex to itself that cross, and n - 1
 * bridges between neighbours. No spur and no ring: for each handle the take-down must look for a crossed edge. The
 * bridges have the low numbers, so they are asked first, and to see that one is not crossed takes a walk to the row's
 * end. */
Shape handles(unsigned n, uint16_t cap);

/* A block with n pockets in one face. Root is the floor of a pocket, so the face with the pockets is met at one of its
 * rings: that ring must become its outer loop and all its other loops must go to the root. */
Shape pockets(unsigned n, uint16_t cap);

/* n solids of one vertex each. */
Shape lone_solids(unsigned n, uint16_t cap);

#endif
