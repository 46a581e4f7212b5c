// Gecode's extensional on a workload: see gecode.h.
#include <gecode/int.hh>

#include <memory>
#include <vector>

extern "C" {
#include "fekhvina.h"
#include "gecode.h"
#include "timing.h"

extern const int gecode_built = 1;
}

using namespace Gecode;

namespace {

const int NO_LETTER = 64;

uint64_t number(const uint8_t *at, int width)
{
    uint64_t value = 0;
    for (int i = 0; i < width; i++) {
        value |= static_cast<uint64_t>(at[i]) << (8 * i);
    }
    return value;
}

std::vector<block> blocks_of(const bytes &mask)
{
    std::vector<block> blocks;
    for (size_t at = 6; at < mask.len; at += 12) {
        blocks.push_back({number(mask.at + at, 8), static_cast<uint16_t>(number(mask.at + at + 8, 2)),
                          static_cast<uint16_t>(number(mask.at + at + 10, 2))});
    }
    return blocks;
}

DFA automaton(const bytes &book, bool padded)
{
    int states = book.at[4], letters = book.at[5];
    std::vector<DFA::Transition> moves;
    std::vector<int> accepting;
    for (int q = 0; q < states; q++) {
        for (int c = 0; c < letters; c++) {
            int next = book.at[15 + q * letters + c];
            if (next != 255) {
                moves.push_back(DFA::Transition(q, c, next));
            }
        }
        if (padded) {
            moves.push_back(DFA::Transition(q, NO_LETTER, q));
        }
        if (book.at[7 + q / 8] >> q % 8 & 1) {
            accepting.push_back(q);
        }
    }
    moves.push_back(DFA::Transition(-1, 0, 0));
    accepting.push_back(-1);
    return DFA(book.at[6], moves.data(), accepting.data());
}

// The letters of a set, and maybe none.
IntSet domain(uint64_t set, bool optional)
{
    std::vector<int> letters;
    for (int c = 0; c < 64; c++) {
        if (set >> c & 1) {
            letters.push_back(c);
        }
    }
    if (optional) {
        letters.push_back(NO_LETTER);
    }
    return IntSet(letters.data(), static_cast<int>(letters.size()));
}

class Form : public Space {
public:
    IntVarArray places;

    explicit Form(const std::vector<block> &blocks)
    {
        IntVarArgs variables;
        for (const block &each : blocks) {
            IntSet mandatory = domain(each.set, false), optional = domain(each.set, true);
            for (int j = 0; j < each.upper; j++) {
                variables << IntVar(*this, j < each.lower ? mandatory : optional);
            }
        }
        places = IntVarArray(*this, variables);
    }

    explicit Form(Form &form) : Space(form)
    {
        places.update(*this, form.places);
    }

    Space *copy() override
    {
        return new Form(*this);
    }

    // Whether some word of the mask is accepted.
    bool narrow(const DFA &dfa)
    {
        extensional(*this, places, dfa);
        return status() != SS_FAILED;
    }

    uint64_t letters(int place) const
    {
        uint64_t set = 0;
        for (IntVarValues value(places[place]); value(); ++value) {
            set |= value.val() < NO_LETTER ? UINT64_C(1) << value.val() : 0;
        }
        return set;
    }
};

// The blocks of a mask, and the automaton of a book for it.
struct Model {
    std::vector<block> blocks;
    DFA dfa;

    explicit Model(const struct workload *w) : blocks(blocks_of(w->mask))
    {
        bool padded = false;
        for (const block &each : blocks) {
            padded |= each.lower < each.upper;
        }
        dfa = automaton(w->book, padded);
    }
};

// What place returns for a place of a block; both from 1, place 0 for the optional part.
uint64_t place_set(const struct workload *w, int block, int place)
{
    return fekhvina_place_set(w->book.at, w->book.len, w->mask.at, w->mask.len, static_cast<uint32_t>(block),
                              static_cast<uint32_t>(place));
}

bool same_letters(const Form &form, const std::vector<block> &blocks, const struct workload *w)
{
    int at = 0, block = 0;
    for (const struct block &each : blocks) {
        block++;
        for (int j = 1; j <= each.upper; j++, at++) {
            uint64_t found = form.letters(at);
            if (j <= each.lower ? found != place_set(w, block, j) : (found & ~place_set(w, block, 0)) != 0) {
                return false;
            }
        }
    }
    return true;
}

volatile uint64_t seen;

} // namespace

extern "C" int gecode_agrees(const struct workload *w)
{
    static uint8_t out[6 + 12 * 1024];
    bool none = fekhvina_narrow_verdict(w->book.at, w->book.len, w->mask.at, w->mask.len, out, sizeof out) == 1;
    try {
        Model model(w);
        Form form(model.blocks);
        return form.narrow(model.dfa) ? !none && same_letters(form, model.blocks, w) : none;
    } catch (const Int::VariableEmptyDomain &) { // a mandatory place with no letter
        return none;
    }
}

extern "C" double run_gecode(const void *workload, unsigned times)
{
    double start = now();
    for (unsigned i = 0; i < times; i++) {
        Model model(static_cast<const struct workload *>(workload));
        Form form(model.blocks);
        form.narrow(model.dfa);
        for (int place = 0; place < form.places.size(); place++) {
            seen = form.letters(place);
        }
    }
    return now() - start;
}

extern "C" double run_gecode_alone(const void *workload, unsigned times)
{
    Model model(static_cast<const struct workload *>(workload));
    std::vector<std::unique_ptr<Form>> forms;
    for (unsigned i = 0; i < times; i++) {
        forms.push_back(std::unique_ptr<Form>(new Form(model.blocks)));
    }
    double start = now();
    for (unsigned i = 0; i < times; i++) {
        forms[i]->narrow(model.dfa);
    }
    return now() - start;
}
