// The workloads by CGAL's Euler operators on its Surface_mesh. Preconditions are unchecked (NDEBUG), nothing is logged
// and no point is set. mev at a corner is split_vertex(h, h), an antenna; CGAL has no operator that takes one away, so
// kev is its parts by hand.
#include "peers.h"
#include "timing.h"

#include <CGAL/Simple_cartesian.h>
#include <CGAL/Surface_mesh.h>
#include <CGAL/boost/graph/Euler_operations.h>
#include <vector>

typedef CGAL::Surface_mesh<CGAL::Simple_cartesian<double>::Point_3> Mesh;
typedef boost::graph_traits<Mesh>::halfedge_descriptor Half;
namespace Euler = CGAL::Euler;

namespace {

struct Model {
    Mesh mesh;
    struct Step {
        Half made;
        bool face;
    };
    std::vector<Step> steps;  // to be taken back, the last one first
    Half in;                  // a half-edge of the face that is worked on

    // Room for everything is reserved, and one edge is there: an edge is where CGAL's operators begin.
    explicit Model(unsigned room) {
        mesh.reserve(room, room, room);
        steps.reserve(2 * room);
        auto a = mesh.add_vertex(), b = mesh.add_vertex();
        auto f = mesh.add_face();
        Half h = halfedge(add_edge(mesh), mesh), o = opposite(h, mesh);
        set_target(h, b, mesh), set_target(o, a, mesh);
        set_next(h, o, mesh), set_next(o, h, mesh);
        set_face(h, f, mesh), set_face(o, f, mesh);
        set_halfedge(f, h, mesh), set_halfedge(b, h, mesh), set_halfedge(a, o, mesh);
        in = h;
    }

    Half mev(Half at) {
        Half made = Euler::split_vertex(at, at, mesh);
        steps.push_back({made, false});
        return opposite(made, mesh);
    }
    Half mef(Half a, Half b) {
        Half made = Euler::split_face(a, b, mesh);
        steps.push_back({made, true});
        return made;
    }
    void kev(Half h) {
        Half o = opposite(h, mesh), p = prev(o, mesh);
        auto v = target(o, mesh);
        set_next(p, next(h, mesh), mesh);
        set_halfedge(target(h, mesh), p, mesh), set_halfedge(face(p, mesh), p, mesh);
        remove_edge(edge(h, mesh), mesh), remove_vertex(v, mesh);
    }
    void take_back(size_t until) {
        for (; steps.size() > until; steps.pop_back()) {
            if (steps.back().face) Euler::join_face(steps.back().made, mesh);
            else kev(steps.back().made);
        }
    }

    void polygon(unsigned n) {
        Half tip = in;
        for (unsigned i = 2; i < n; i++) tip = mev(tip);
        in = mef(tip, prev(in, mesh) == opposite(in, mesh) ? opposite(in, mesh) : prev(in, mesh));
    }
    void lift() {
        static std::vector<Half> tip;
        tip.clear();
        Half h = in;
        do {
            Half n = next(h, mesh);
            tip.push_back(mev(h));
            h = n;
        } while (h != in);
        Half at = tip[0];
        for (size_t i = 0; i < tip.size(); i++) at = mef(at, tip[(i + 1) % tip.size()]);
        in = at;
    }
    void lifted(unsigned corners, unsigned levels) {
        polygon(corners);
        for (unsigned i = 0; i < levels; i++) lift();
    }

    // The links fit together, and there are so many vertices and faces.
    bool good(size_t vertices, size_t faces) const {
        for (Half h : mesh.halfedges()) {
            Half n = next(h, mesh);
            if (prev(n, mesh) != h || face(n, mesh) != face(h, mesh)) return false;
            if (target(h, mesh) != source(n, mesh)) return false;
        }
        return mesh.number_of_vertices() == vertices && mesh.number_of_faces() == faces;
    }
};

// Times `run` and `undo`, which are as many operators as `run` answers; behind them the mesh must be as it was.
template <class Run, class Undo>
int timed(Model &m, size_t vertices, size_t faces, Run run, Undo undo, PeerTimes *t) {
    size_t old_vertices = m.mesh.number_of_vertices(), old_faces = m.mesh.number_of_faces();
    double t0 = seconds();
    size_t n = run();
    double t1 = seconds();
    if (!m.good(vertices, faces)) return 0;
    double t2 = seconds();
    undo();
    double t3 = seconds();
    t->run = (t1 - t0 - clock_cost()) / double(n);
    t->undo = (t3 - t2 - clock_cost()) / double(n);
    return m.good(old_vertices, old_faces);
}

int timed_lift(unsigned corners, unsigned levels, PeerTimes *t) {
    Model m(2 * corners * (levels + 1) + 16);
    auto run = [&] {
        m.lifted(corners, levels);
        return m.steps.size();
    };
    return timed(m, corners * (levels + 1), corners * levels + 2, run, [&] { m.take_back(0); }, t);
}

int timed_splits(Model &m, const std::vector<Half> &at, PeerTimes *t) {
    std::vector<Half> made(at.size());
    auto run = [&] {
        for (size_t i = 0; i < at.size(); i++) made[i] = Euler::split_edge(at[i], m.mesh);
        return at.size();
    };
    auto undo = [&] {
        for (size_t i = at.size(); i-- > 0;) Euler::join_vertex(opposite(made[i], m.mesh), m.mesh);
    };
    return timed(m, m.mesh.number_of_vertices() + at.size(), m.mesh.number_of_faces(), run, undo, t);
}

}  // namespace

int cgal_tower(unsigned levels, PeerTimes *t) { return timed_lift(4, levels, t); }
int cgal_prism(unsigned corners, PeerTimes *t) { return timed_lift(corners, 1, t); }

int cgal_split_one(unsigned n, PeerTimes *t) {
    Model m(n + 16);
    m.polygon(3);
    return timed_splits(m, std::vector<Half>(n, m.in), t);
}

int cgal_split_all(unsigned levels, PeerTimes *t) {
    Model m(16 * levels + 32);
    m.lifted(4, levels);
    std::vector<Half> at;
    for (auto e : m.mesh.edges()) at.push_back(halfedge(e, m.mesh));
    return timed_splits(m, at, t);
}

int cgal_fan(unsigned corners, PeerTimes *t) {
    Model m(2 * corners + 16);
    m.polygon(corners);
    size_t from = m.steps.size();
    auto run = [&] {
        Half h = m.in;  // of the large face, which stays; a triangle goes
        for (unsigned i = 3; i < corners; i++) h = m.mef(prev(h, m.mesh), next(h, m.mesh));
        return m.steps.size() - from;
    };
    return timed(m, corners, corners - 1, run, [&] { m.take_back(from); }, t);
}
