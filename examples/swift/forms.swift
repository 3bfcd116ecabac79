protocol P { associatedtype A }
func layout<T: P & AnyObject>(_: T) {}
func sides<T: P, U: P>(_: T, _: U) where T == U.A {}
func chain<T: P, U: P, V: P>(_: T, _: U, _: V) where T.A == U.A, U.A == V.A {}
