// A task and its reader, which the programs of this folder that read task files (SAS, version 3) share.
#pragma once
#include <cstdio>
#include <cstdlib>
#include <fstream>
#include <sstream>
#include <string>
#include <vector>

using std::string;
using std::vector;

struct Fact {
    int var, val;
};

struct Variable {
    int layer, values;
};

struct Effect {
    vector<Fact> conds;
    int var, pre, post;
};

struct Operator {
    string name;
    vector<Fact> prevail;
    vector<Effect> effects;
    unsigned long long cost;
};

struct Rule {
    vector<Fact> conds;
    int var, val;
};

struct Task {
    vector<Variable> variables;
    vector<int> initial;
    vector<Fact> goal;
    vector<Operator> operators;
    vector<Rule> rules;
};

// The lines of the file, which is taken to be lawful.
struct Lines {
    std::ifstream file;
    Lines(const char *name) : file(name) {
        if (!file) {
            fprintf(stderr, "%s can't be read\n", name);
            exit(1);
        }
    }
    string line() {
        string text;
        if (!getline(file, text)) {
            fprintf(stderr, "the file ends too soon\n");
            exit(1);
        }
        return text;
    }
    void want(const char *words) {
        string text = line();
        if (text != words) {
            fprintf(stderr, "wanted %s, not %s\n", words, text.c_str());
            exit(1);
        }
    }
    vector<long long> numbers() {
        std::istringstream text(line());
        vector<long long> all;
        for (long long number; text >> number;)
            all.push_back(number);
        return all;
    }
    long long number() { return numbers().at(0); }
    unsigned long long cost() { return strtoull(line().c_str(), nullptr, 10); }
    vector<Fact> facts() {
        vector<Fact> all(number());
        for (Fact &fact : all) {
            vector<long long> n = numbers();
            fact = {int(n.at(0)), int(n.at(1))};
        }
        return all;
    }
};

static inline Variable read_variable(Lines &in) {
    in.want("begin_variable");
    in.line();
    int layer = in.number(), values = in.number();
    for (int i = 0; i < values; i++)
        in.line();
    in.want("end_variable");
    return {layer, values};
}

static inline Effect read_effect(Lines &in) {
    vector<long long> n = in.numbers();
    Effect effect;
    size_t at = 1;
    for (long long i = 0; i < n.at(0); i++, at += 2)
        effect.conds.push_back({int(n.at(at)), int(n.at(at + 1))});
    effect.var = n.at(at);
    effect.pre = n.at(at + 1);
    effect.post = n.at(at + 2);
    return effect;
}

static inline Operator read_operator(Lines &in, bool unit) {
    Operator op;
    in.want("begin_operator");
    op.name = in.line();
    op.prevail = in.facts();
    for (long long left = in.number(); left > 0; left--)
        op.effects.push_back(read_effect(in));
    op.cost = in.cost();
    if (unit)
        op.cost = 1;
    in.want("end_operator");
    return op;
}

static inline Rule read_rule(Lines &in) {
    Rule rule;
    in.want("begin_rule");
    rule.conds = in.facts();
    vector<long long> head = in.numbers();
    rule.var = head.at(0);
    rule.val = head.at(2);
    in.want("end_rule");
    return rule;
}

static inline Task read_task(const char *name) {
    Lines in(name);
    Task task;
    in.want("begin_version");
    in.want("3");
    in.want("end_version");
    in.want("begin_metric");
    bool unit = in.number() == 0;
    in.want("end_metric");
    for (long long left = in.number(); left > 0; left--)
        task.variables.push_back(read_variable(in));
    for (long long left = in.number(); left > 0; left--) {
        in.want("begin_mutex_group");
        in.facts();
        in.want("end_mutex_group");
    }
    in.want("begin_state");
    for (size_t i = 0; i < task.variables.size(); i++)
        task.initial.push_back(in.number());
    in.want("end_state");
    in.want("begin_goal");
    task.goal = in.facts();
    in.want("end_goal");
    for (long long left = in.number(); left > 0; left--)
        task.operators.push_back(read_operator(in, unit));
    for (long long left = in.number(); left > 0; left--)
        task.rules.push_back(read_rule(in));
    return task;
}
