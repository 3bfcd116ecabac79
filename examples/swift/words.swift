func words<T: BinaryInteger>(_: T) {}
