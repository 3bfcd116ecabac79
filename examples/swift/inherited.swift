protocol P1 {}
protocol P2 { associatedtype Assoc: P1 }
protocol Good: P2, P1 where Assoc == Self {}
