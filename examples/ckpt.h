/* For a C compiler: the two directives of a source as nothing, so that one file serves both. The `ckpt` program skips every #include. */
#ifndef CKPT_H
#define CKPT_H
#define CHECKPOINT_HERE ((void)0)
#define EXCLUDE_HERE ((void)0)
#endif
