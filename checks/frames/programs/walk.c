/* A binary tree: insertion and a walk by recursion, sums through callbacks and a list of any length of
   arguments, a frame of more than two kilobytes, and two procedures that call each other. */
#include <stdarg.h>

enum { NODES = 40, SCRATCH = 700 };

struct node {
    int key;
    int height;
    struct node *left, *right;
};

static struct node nodes[NODES];
static int used;

struct span {
    int low, high, count;
};

static int height_of(const struct node *node)
{
    return node == 0 ? 0 : node->height;
}

__attribute__((noinline)) struct node *insert(struct node *node, int key)
{
    if (node == 0) {
        node = &nodes[used++];
        node->key = key;
    } else if (key < node->key)
        node->left = insert(node->left, key);
    else
        node->right = insert(node->right, key);
    int left = height_of(node->left), right = height_of(node->right);
    node->height = 1 + (left > right ? left : right);
    return node;
}

/* The structure comes back through memory of the caller. */
__attribute__((noinline)) struct span span_of(const struct node *node)
{
    struct span span = {node->key, node->key, 1};
    if (node->left != 0) {
        struct span left = span_of(node->left);
        span.low = left.low;
        span.count += left.count;
    }
    if (node->right != 0) {
        struct span right = span_of(node->right);
        span.high = right.high;
        span.count += right.count;
    }
    return span;
}

typedef int visit(int sum, const struct node *node);

__attribute__((noinline)) int walk(const struct node *node, visit *each, int sum)
{
    if (node == 0)
        return sum;
    sum = walk(node->left, each, sum);
    sum = each(sum, node);
    return walk(node->right, each, sum);
}

__attribute__((noinline)) int add_all(int count, ...)
{
    va_list rest;
    va_start(rest, count);
    int sum = 0;
    while (count-- > 0)
        sum += va_arg(rest, int);
    va_end(rest);
    return sum;
}

__attribute__((noinline)) int add_node(int sum, const struct node *node)
{
    return add_all(3, sum, node->key, node->height);
}

int is_odd(unsigned number);

__attribute__((noinline)) int is_even(unsigned number)
{
    return number == 0 ? 1 : 1 & (1 + is_odd(number - 1) + 1);
}

__attribute__((noinline)) int is_odd(unsigned number)
{
    return number == 0 ? 0 : 1 & (1 + is_even(number - 1) + 1);
}

__attribute__((noinline)) int mix_node(int sum, const struct node *node)
{
    return sum * 31 + node->key + is_even((unsigned)node->height);
}

__attribute__((noinline)) int fill(int seed, visit *each)
{
    volatile int scratch[SCRATCH];
    int sum = 0;
    for (int i = 0; i < SCRATCH; i += 50)
        scratch[i] = each(seed, &nodes[i % NODES]);
    for (int i = 0; i < SCRATCH; i += 50)
        sum += scratch[i];
    return sum;
}

int main(void)
{
    struct node *root = 0;
    unsigned key = 12345;
    for (int i = 0; i < NODES; i++) {
        key = key * 1103515245 + 12345;
        root = insert(root, (int)(key >> 20));
    }
    struct span span = span_of(root);
    int sum = span.low + span.high + span.count;
    sum = walk(root, add_node, sum);
    sum = walk(root, mix_node, sum);
    sum += fill(sum, mix_node);
    return sum & 127;
}
