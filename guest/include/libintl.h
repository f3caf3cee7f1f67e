/* Translated messages: each text is its own translation, as if no catalogue were found. */
#ifndef IT_LIBINTL_H
#define IT_LIBINTL_H

#define IT_TEXT static inline __attribute__((__unused__, __format_arg__(1))) char *
IT_TEXT gettext(const char *text) { return (char *)text; }

#define dgettext(domain, text) ((void)(domain), gettext(text))
#define dcgettext(domain, text, category) ((void)(domain), (void)(category), gettext(text))
#define ngettext(one, many, count) ((count) == 1 ? gettext(one) : gettext(many))
#define dngettext(domain, one, many, count) ((void)(domain), ngettext(one, many, count))
#define dcngettext(domain, one, many, count, category) ((void)(category), dngettext(domain, one, many, count))

#define textdomain(domain) ((char *)(domain))
#define bindtextdomain(domain, folder) ((void)(domain), (char *)(folder))
#define bind_textdomain_codeset(domain, codes) ((void)(domain), (char *)(codes))

#endif
