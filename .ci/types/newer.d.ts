// What the pages use, and the compiler of Debian 12 (TypeScript 4.8) doesn't know yet.

interface MapConstructor {
    groupBy<K, V>(values: Iterable<V>, keyOf: (value: V, index: number) => K): Map<K, V[]>;
}

interface ObjectConstructor {
    groupBy<V>(values: Iterable<V>, keyOf: (value: V, index: number) => PropertyKey): Record<string, V[]>;
}

interface Array<T> {
    toReversed(): T[];
    toSorted(compare?: (a: T, b: T) => number): T[];
}

interface Element {
    checkVisibility(): boolean;
}
