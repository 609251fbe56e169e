// Dividing edges and faces by OpenMesh: split_edge and collapse, insert_edge and remove_edge. Nothing is checked or
// logged.
#include "peers.h"
#include "timing.h"

#include <OpenMesh/Core/Mesh/PolyMesh_ArrayKernelT.hh>
#include <vector>

typedef OpenMesh::PolyMesh_ArrayKernelT<> Mesh;
typedef Mesh::HalfedgeHandle Half;

namespace {

// One face of n corners in a mesh where things can be deleted, with room for what will come.
Half polygon(Mesh &m, unsigned n, unsigned room) {
    m.request_vertex_status(), m.request_edge_status(), m.request_halfedge_status(), m.request_face_status();
    m.reserve(n + room, n + 2 * room, room);
    std::vector<Mesh::VertexHandle> v(n);
    for (unsigned i = 0; i < n; i++) v[i] = m.add_vertex(Mesh::Point(float(i), float(i % 7), 1));
    return m.halfedge_handle(m.add_face(v));
}

// OpenMesh only marks what is killed, so behind `undo` the marks are counted.
template <class Items>
size_t deleted(Mesh &m, Items items) {
    size_t n = 0;
    for (auto item : items) n += m.status(item).deleted();
    return n;
}

template <class Run, class Undo>
void timed(unsigned n, Run run, Undo undo, PeerTimes *t) {
    double t0 = seconds();
    run();
    double t1 = seconds();
    undo();
    double t2 = seconds();
    t->run = (t1 - t0 - clock_cost()) / n;
    t->undo = (t2 - t1 - clock_cost()) / n;
}

}  // namespace

int openmesh_split_one(unsigned n, PeerTimes *t) {
    Mesh m;
    Half h = polygon(m, 3, n + 16);
    std::vector<Mesh::VertexHandle> made(n);
    auto run = [&] {
        for (unsigned i = 0; i < n; i++) {
            made[i] = m.add_vertex(Mesh::Point(float(i), 5, 6));
            m.split_edge(m.edge_handle(h), made[i]);
        }
    };
    auto undo = [&] {
        for (unsigned i = n; i-- > 0;) m.collapse(m.halfedge_handle(made[i]));
    };
    timed(n, run, undo, t);
    return m.n_edges() == n + 3 && deleted(m, m.all_edges()) == n && deleted(m, m.all_vertices()) == n;
}

int openmesh_fan(unsigned corners, PeerTimes *t) {
    Mesh m;
    Half h = polygon(m, corners, corners + 16);
    unsigned n = corners - 3;
    std::vector<Half> made(n);
    auto run = [&] {
        for (unsigned i = 0; i < n; i++) {  // insert_edge(p, q): from the end of p to the start of q
            made[i] = m.insert_edge(m.next_halfedge_handle(h), h);
            h = m.opposite_halfedge_handle(made[i]);
        }
    };
    auto undo = [&] {
        for (unsigned i = n; i-- > 0;) m.remove_edge(m.edge_handle(made[i]));
    };
    timed(n, run, undo, t);
    return m.n_faces() == n + 1 && deleted(m, m.all_faces()) == n && deleted(m, m.all_edges()) == n;
}
