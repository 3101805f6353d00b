/** Items by what a function says of each, as a Map of lists in their order. */
export function grouped(items, keyOf) {
  const groups = new Map();
  for (const it of items) {
    const key = keyOf(it);
    if (groups.has(key)) groups.get(key).push(it);
    else groups.set(key, [it]);
  }
  return groups;
}
