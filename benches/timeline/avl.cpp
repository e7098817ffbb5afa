// The yardstick: an intrusive AVL tree with parent pointers, balance factors and the leftmost node at hand, keyed by
// (128-bit virtual runtime, queue number). Prints nanoseconds for one look at the least, its pick and its reinsertion.
#include <chrono>
#include <cstdint>
#include <cstdio>
#include <vector>

typedef unsigned __int128 u128;

struct Node {
    u128 vr;
    uint8_t queue;
    int8_t balance; // height of the right side less that of the left
    Node *left, *right, *parent;
};

static inline bool before(const Node *a, const Node *b) {
    return a->vr < b->vr || (a->vr == b->vr && a->queue < b->queue);
}

struct Tree {
    Node *root = nullptr, *least = nullptr;

    void replace(Node *parent, Node *old, Node *node) {
        if (!parent) root = node;
        else if (parent->left == old) parent->left = node;
        else parent->right = node;
        if (node) node->parent = parent;
    }

    Node *rotate_left(Node *a) {
        Node *b = a->right;
        replace(a->parent, a, b);
        a->right = b->left;
        if (a->right) a->right->parent = a;
        b->left = a;
        a->parent = b;
        return b;
    }

    Node *rotate_right(Node *a) {
        Node *b = a->left;
        replace(a->parent, a, b);
        a->left = b->right;
        if (a->left) a->left->parent = a;
        b->right = a;
        a->parent = b;
        return b;
    }

    // Lifts the heavy right side of a; tells by the balance of the new top whether it is lower than before.
    Node *lift_right(Node *a) {
        Node *b = a->right;
        if (b->balance >= 0) {
            rotate_left(a);
            if (b->balance == 0) { a->balance = 1; b->balance = -1; }
            else { a->balance = 0; b->balance = 0; }
            return b;
        }
        Node *c = b->left;
        rotate_right(b);
        rotate_left(a);
        a->balance = c->balance > 0 ? -1 : 0;
        b->balance = c->balance < 0 ? 1 : 0;
        c->balance = 0;
        return c;
    }

    Node *lift_left(Node *a) {
        Node *b = a->left;
        if (b->balance <= 0) {
            rotate_right(a);
            if (b->balance == 0) { a->balance = -1; b->balance = 1; }
            else { a->balance = 0; b->balance = 0; }
            return b;
        }
        Node *c = b->right;
        rotate_left(b);
        rotate_right(a);
        a->balance = c->balance < 0 ? 1 : 0;
        b->balance = c->balance > 0 ? -1 : 0;
        c->balance = 0;
        return c;
    }

    void insert(Node *node) {
        node->left = node->right = nullptr;
        node->balance = 0;
        Node *parent = nullptr, **link = &root;
        bool leftmost = true;
        while (*link) {
            parent = *link;
            if (before(node, parent)) link = &parent->left;
            else { link = &parent->right; leftmost = false; }
        }
        *link = node;
        node->parent = parent;
        if (leftmost) least = node;
        while (parent) {
            parent->balance += node == parent->right ? 1 : -1;
            if (parent->balance == 0) return;
            if (parent->balance == 2) { lift_right(parent); return; }
            if (parent->balance == -2) { lift_left(parent); return; }
            node = parent;
            parent = node->parent;
        }
    }

    // The least node has nothing on its left.
    Node *take_least() {
        Node *node = least;
        if (!node) return nullptr;
        Node *parent = node->parent, *right = node->right;
        if (right) { least = right; while (least->left) least = least->left; }
        else least = parent;
        replace(parent, node, right);
        while (parent) {
            parent->balance += 1; // its left side is one level lower
            if (parent->balance == 1) break;
            if (parent->balance == 2) {
                parent = lift_right(parent);
                if (parent->balance != 0) break;
            }
            // the side is lower: go on, always up the left spine
            parent = parent->parent;
        }
        return node;
    }
};

int main() {
    for (int queues : {2, 16, 64, 256}) {
        double best = 1e9;
        u128 check = 0;
        for (int round = 0; round < 100; round++) {
            std::vector<Node> nodes(queues);
            Tree tree;
            for (int q = 0; q < queues; q++) {
                nodes[q].vr = q;
                nodes[q].queue = q;
                tree.insert(&nodes[q]);
            }
            uint64_t dice = 1, sum = 0;
            const int turns = 100000;
            auto start = std::chrono::steady_clock::now();
            for (int turn = 0; turn < turns; turn++) {
                sum += tree.least->queue;
                Node *node = tree.take_least();
                dice = dice * 6364136223846793005u + 1442695040888963407u;
                node->vr += dice >> 44;
                tree.insert(node);
            }
            std::chrono::duration<double, std::nano> took = std::chrono::steady_clock::now() - start;
            if (took.count() / turns < best) best = took.count() / turns;
            check = tree.least->vr + sum;
        }
        printf("%d %.1f %llu\n", queues, best, (unsigned long long)check);
    }
}
