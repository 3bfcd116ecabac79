protocol P { associatedtype A }
protocol Q { associatedtype B: P }
func f<T>(_: T) where T.A: Q, T.A.B == T {}
