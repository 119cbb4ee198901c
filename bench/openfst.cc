// OpenFst as a yardstick, for bench/openfst.rs: translation and join on machines that it holds in its own form.

#include <fst/fstlib.h>

#include <cstddef>
#include <cstdint>
#include <vector>

using Arc = fst::StdArc;
using Machine = fst::StdVectorFst;
using State = Arc::StateId;
using Weight = Arc::Weight;

// The places of a held table (include/yotselina.h).
enum { STATES = 32, STARTS_AT = 1, FINALS_AT = 33, COUNT_AT = 97, LINES_AT = 99, LINE = 12, OUTPUTS_AT = 4 };

namespace {

// A machine, and where the output codes of its lines stand. A line is one arc: on the output side it has its number, counted from 1, which becomes
// its codes when a path is written; or its one code, where the machine is the first of a join. So no state is added for a second code.
struct Held {
  Machine machine;
  std::vector<uint8_t> table;
};

int line_count(const uint8_t *table) { return table[COUNT_AT] + 256 * table[COUNT_AT + 1]; }

// OpenFst has one start state: where the table has not just one, a state more leads to each by an arc that reads and writes nothing.
void add_start(Machine *machine, const uint8_t *table) {
  std::vector<State> starts;
  for (State state = 0; state < STATES; state++)
    if (table[STARTS_AT + state] == 1) starts.push_back(state);
  if (starts.size() == 1) return machine->SetStart(starts[0]);
  const State start = machine->AddState();
  machine->SetStart(start);
  for (State state : starts) machine->AddArc(start, Arc(0, 0, Weight::One(), state));
}

Held *held(const uint8_t *table, bool by_code) {
  Held *made = new Held;
  made->table.assign(table, table + LINES_AT + LINE * line_count(table));
  for (State state = 0; state < table[0]; state++) {
    made->machine.AddState();
    if (table[FINALS_AT + state] == 1) made->machine.SetFinal(state, Weight::One());
  }
  add_start(&made->machine, table);
  for (int number = 0; number < line_count(table); number++) {
    const uint8_t *line = table + LINES_AT + LINE * number;
    made->machine.AddArc(line[0], Arc(line[2], by_code ? line[OUTPUTS_AT] : number + 1, Weight::One(), line[1]));
  }
  if (by_code)
    fst::ArcSort(&made->machine, fst::OLabelCompare<Arc>());
  else
    fst::ArcSort(&made->machine, fst::ILabelCompare<Arc>());
  return made;
}

Machine acceptor(const uint8_t *word, size_t length) {
  Machine machine;
  machine.ReserveStates(length + 1);
  for (size_t place = 0; place <= length; place++) machine.AddState();
  machine.SetStart(0);
  machine.SetFinal(length, Weight::One());
  for (size_t place = 0; place < length; place++) machine.AddArc(place, Arc(word[place], word[place], Weight::One(), place + 1));
  return machine;
}

// A path of the composition, which is made only as far as the search goes. All weights are one: the first path that is found is a shortest one.
template <class Queue>
Machine first_path(const Machine &word, const Machine &machine) {
  Machine path;
  std::vector<Weight> distance;
  Queue queue;
  const fst::ComposeFst<Arc> composition(word, machine);
  fst::ShortestPathOptions<Arc, Queue, fst::AnyArcFilter<Arc>> options(&queue, fst::AnyArcFilter<Arc>());
  options.first_path = true;
  fst::ShortestPath(composition, &path, &distance, options);
  return path;
}

}  // namespace

extern "C" {

void *openfst_hold(const uint8_t *table) { return held(table, false); }

void *openfst_hold_first(const uint8_t *table) { return held(table, true); }

void openfst_drop(void *machine) { delete static_cast<Held *>(machine); }

// Writes the output of an accepting path that reads the word, and returns its length; -1 where there is none. `stack` chooses between a search by a
// stack and one by a queue.
ptrdiff_t openfst_translate(const void *machine, const uint8_t *word, size_t length, bool stack, uint8_t *output) {
  const Held &held = *static_cast<const Held *>(machine);
  const Machine read = acceptor(word, length);
  const Machine path = stack ? first_path<fst::LifoQueue<State>>(read, held.machine) : first_path<fst::FifoQueue<State>>(read, held.machine);
  State state = path.Start();
  if (state == fst::kNoStateId) return -1;
  uint8_t *end = output;
  while (path.NumArcs(state) > 0) {
    const Arc arc = fst::ArcIterator<Machine>(path, state).Value();
    if (arc.olabel != 0) {
      const uint8_t *line = held.table.data() + LINES_AT + LINE * (arc.olabel - 1);
      for (int place = 0; place < line[3]; place++) *end++ = line[OUTPUTS_AT + place];
    }
    state = arc.nextstate;
  }
  return end - output;
}

// The composition, with all states that lie on no accepting path taken out, as a machine that can translate.
void *openfst_join(const void *first, const void *second) {
  Held *made = new Held;
  fst::Compose(static_cast<const Held *>(first)->machine, static_cast<const Held *>(second)->machine, &made->machine);
  return made;
}

// Whether an accepting path of a machine, joined or not, reads the word.
bool openfst_reads(const void *machine, const uint8_t *word, size_t length) {
  const Machine read = acceptor(word, length);
  return first_path<fst::FifoQueue<State>>(read, static_cast<const Held *>(machine)->machine).Start() != fst::kNoStateId;
}

}  // extern "C"
