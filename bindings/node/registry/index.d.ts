/** The path of IANA's Language Subtag Registry, without `Comments` and `Added`. */
export const path: string;
/** Its day, for example `2025-05-15`. */
export const fileDate: string;
