// The ring of the benchmark in CAF: K actors pass a token on, each to the next, until it has gone round ten times.
// ring_caf K WORKERS prints the nanoseconds a message.
#include <caf/all.hpp>

#include <chrono>
#include <cstdio>
#include <cstdlib>
#include <vector>

using next_atom = caf::atom_constant<caf::atom("next")>;

struct place {
    caf::actor next;
};

caf::behavior member(caf::stateful_actor<place>* self, caf::actor done) {
    return {
        [=](next_atom, const caf::actor& next) { self->state.next = next; },
        [=](int64_t left) {
            if (left > 0)
                self->send(self->state.next, left - 1);
            else
                self->send(done, left);
        },
    };
}

int main(int argc, char** argv) {
    int agents = std::atoi(argv[1]);
    caf::actor_system_config config;
    config.set("scheduler.max-threads", std::atoi(argv[2]));
    caf::actor_system system{config};
    caf::scoped_actor self{system};
    std::vector<caf::actor> ring;
    for (int k = 0; k < agents; ++k)
        ring.push_back(system.spawn(member, caf::actor_cast<caf::actor>(self)));
    for (int k = 0; k < agents; ++k)
        self->send(ring[k], next_atom::value, ring[(k + 1) % agents]);
    auto began = std::chrono::steady_clock::now();
    self->send(ring[1 % agents], int64_t{10} * agents);
    self->receive([](int64_t) {});
    auto took = std::chrono::steady_clock::now() - began;
    std::printf("%.1f\n", std::chrono::duration<double, std::nano>(took).count() / (10.0 * agents));
    for (auto& actor : ring)
        self->send_exit(actor, caf::exit_reason::user_shutdown);
}
