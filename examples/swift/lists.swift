protocol P { associatedtype A: P }
func f<T, U: P>(_: T, _: U) where T == U.A, U == T.A {}
func h<T: P, U>(_: T, _: U) where T == U.A, U == T.A {}
