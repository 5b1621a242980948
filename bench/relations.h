// Facts and operators of a task as diagrams, which the programs on BuDDy that read task files share. The operators are made and joined
// as in crates/transitions and crates/trans_merge.
#pragma once
#include "reach.h"
#include "task.h"
#include <algorithm>
#include <map>
#include <set>
#include <vector>

// The bits of the base variables, one variable after the other, each with as many as its values need, the highest first.
struct Order {
    vector<int> first, width, values;
    int bits = 0;
    Order(const Task &task, const vector<int> &sequence)
        : first(task.variables.size()), width(task.variables.size()), values(task.variables.size()) {
        for (int var : sequence) {
            values[var] = task.variables[var].values;
            while ((1 << width[var]) < values[var])
                width[var]++;
            first[var] = bits;
            bits += width[var];
        }
    }
    bdd value(Side side, Fact fact) const {
        bdd all = bddtrue;
        for (int bit = width[fact.var] - 1; bit >= 0; bit--)
            all = literal(level(side, first[fact.var] + bit), fact.val >> (width[fact.var] - 1 - bit) & 1) & all;
        return all;
    }
    // The codes that are a value's.
    bdd in_range(int var) const {
        bdd all = values[var] == 1 << width[var] ? bddtrue : bddfalse;
        for (int val = 0; val < values[var] && all != bddtrue; val++)
            all = all | value(NOW, {var, val});
        return all;
    }
    // The variable keeps its value.
    bdd same(int var) const {
        bdd all = bddtrue;
        for (int place = first[var] + width[var] - 1; place >= first[var]; place--)
            all = bdd_biimp(literal(level(NOW, place), true), literal(level(NEXT, place), true)) & all;
        return all & in_range(var);
    }
    // The bits of these variables, rising.
    vector<int> places(const std::set<int> &vars) const {
        vector<int> all;
        for (int var : vars)
            for (int bit = 0; bit < width[var]; bit++)
                all.push_back(first[var] + bit);
        std::sort(all.begin(), all.end());
        return all;
    }
};

// The base variables as they stand in the file.
static inline vector<int> base_variables(const Task &task) {
    vector<int> all;
    for (size_t var = 0; var < task.variables.size(); var++)
        if (task.variables[var].layer < 0)
            all.push_back(var);
    return all;
}

// Facts of base and derived variables: each derived variable has the set of the states in which the rules raise it.
struct Facts {
    const Task &task;
    const Order &order;
    vector<bdd> raised;
    Facts(const Task &task, const Order &order) : task(task), order(order), raised(task.variables.size(), bddfalse) {
        std::set<int> layers;
        for (const Variable &variable : task.variables)
            if (variable.layer >= 0)
                layers.insert(variable.layer);
        for (int layer : layers)
            while (pass(layer)) {
            }
    }
    bdd fact(Fact fact) const {
        if (task.variables[fact.var].layer < 0)
            return order.value(NOW, fact);
        return fact.val == task.initial[fact.var] ? !raised[fact.var] : raised[fact.var];
    }
    bdd all(const vector<Fact> &facts) const {
        bdd set = bddtrue;
        for (Fact one : facts)
            set = set & fact(one);
        return set;
    }

  private:
    // Adds what the rules of the layer say now. Whether any set grew.
    bool pass(int layer) {
        bool changed = false;
        for (const Rule &rule : task.rules)
            if (task.variables[rule.var].layer == layer && rule.val != task.initial[rule.var]) {
                bdd more = raised[rule.var] | all(rule.conds);
                changed |= more != raised[rule.var];
                raised[rule.var] = more;
            }
        return changed;
    }
};

static inline bdd initial_state(const Task &task, const Order &order) {
    bdd state = bddtrue;
    for (int var = task.variables.size() - 1; var >= 0; var--)
        if (task.variables[var].layer < 0)
            state = order.value(NOW, {var, task.initial[var]}) & state;
    return state;
}

// Steps that leave all variables but these.
struct Relation {
    bdd root;
    std::set<int> vars;
};

// The states in which the operator applies.
static inline bdd applies(const Facts &facts, const Operator &op) {
    bdd set = facts.all(op.prevail);
    for (const Effect &effect : op.effects)
        if (effect.pre >= 0)
            set = set & facts.fact({effect.var, effect.pre});
    return set;
}

// The next value of the variable: that of the last effect that fires, or else its own.
static inline bdd next_value(const Facts &facts, const Operator &op, int var) {
    bdd next = facts.order.same(var);
    for (const Effect &effect : op.effects)
        if (effect.var == var)
            next = bdd_ite(facts.all(effect.conds), facts.order.value(NEXT, {var, effect.post}), next);
    return next & facts.order.in_range(var);
}

static inline Relation relation(const Facts &facts, const Operator &op) {
    Relation made{applies(facts, op), {}};
    for (const Effect &effect : op.effects)
        if (made.vars.insert(effect.var).second)
            made.root = made.root & next_value(facts, op, effect.var);
    return made;
}

// The steps of the relation, where the others of these variables keep their values.
static inline bdd widened(const Order &order, const Relation &relation, const std::set<int> &vars) {
    bdd root = relation.root;
    for (int var : vars)
        if (!relation.vars.count(var))
            root = root & order.same(var);
    return root;
}

static inline Relation joined(const Order &order, const Relation &a, const Relation &b) {
    std::set<int> vars = a.vars;
    vars.insert(b.vars.begin(), b.vars.end());
    return {widened(order, a, vars) | widened(order, b, vars), vars};
}

static const int BOUND = 4096;

// The relations joined by halves, bottom up: two halves that are one each become one while that has at most BOUND nodes.
static inline vector<Relation> join_halves(const Order &order, const vector<Relation> &all, size_t from, size_t to) {
    if (to - from == 1)
        return {all[from]};
    size_t middle = from + (to - from) / 2;
    vector<Relation> left = join_halves(order, all, from, middle), right = join_halves(order, all, middle, to);
    if (left.size() == 1 && right.size() == 1) {
        Relation both = joined(order, left[0], right[0]);
        if (bdd_nodecount(both.root) <= BOUND)
            return {both};
    }
    left.insert(left.end(), right.begin(), right.end());
    return left;
}
