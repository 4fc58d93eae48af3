/* signature.h: the signatures of classes, in the form of Java's, so that debuggers for Java take them. */
#ifndef SIGNATURE_H
#define SIGNATURE_H

/* The signature of a source: "Lscripts/n_body;" of "./scripts/n-body.lua", and "L_command_line_;" of "(command line)".
 * A text that was loaded, such as `[string "a/b"]`, is one name. Free it. NULL when there is no memory. */
char *signature_of_source(const char *source);

/* The signature of a C function: "LC/sleep;" of "sleep". Free it. NULL when there is no memory. */
char *signature_of_native(const char *name);

#endif
