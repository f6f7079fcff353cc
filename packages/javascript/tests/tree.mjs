/** The top of the tree, where the crates and the built libraries stand. */
export const TOP = new URL("../../../", import.meta.url);
