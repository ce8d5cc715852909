/* For the kit's clang, which has no headers of its own. */
typedef __SIZE_TYPE__ size_t;
#define offsetof(type, field) __builtin_offsetof(type, field)
