// The limits of the registry that pages speak of, or check before a command is sent.

/** The most bytes of a file that is imported, and the most entries in it. */
export const MOST_FILE = 4_194_304;
export const MOST_ENTRIES = 100_000;

/** The most bytes of a name; of a note, a comment or a reason. */
export const MOST_NAME = 1_000;
export const MOST_TEXT = 4_000;
