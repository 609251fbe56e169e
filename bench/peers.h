/* The peers: the same shapes by CGAL's Surface_mesh and by OpenMesh. They check nothing and log nothing.
 *
 * A peer makes the shape of this size and takes it back, looks whether the mesh is what it should be (0 where it is
 * not), and answers the seconds that an operator took. Where a peer was not installed when the benchmark was built, its
 * functions are NULL: the symbols are weak. */
#ifndef BENCH_PEERS_H
#define BENCH_PEERS_H

#ifdef __cplusplus
extern "C" {
#define WEAK
#else
#define WEAK __attribute__((weak))
#endif

typedef struct {
    double run, undo;
} PeerTimes;
typedef int Peer(unsigned size, PeerTimes *t);

Peer cgal_tower WEAK, cgal_prism WEAK, cgal_split_one WEAK, cgal_split_all WEAK, cgal_fan WEAK;
Peer openmesh_split_one WEAK, openmesh_fan WEAK;

#ifdef __cplusplus
}
#endif
#endif
