
// Appended to nom 7.1.1: tuples of parsers are parsers, as in nom 8, by nom's own Tuple.
macro_rules! tuple_parser(
  ($($name:ident $ty:ident),+) => (
    impl<Input: Clone, $($ty),+, Error: ParseError<Input>, $($name: Parser<Input, $ty, Error>),+>
      Parser<Input, ($($ty),+), Error> for ($($name),+)
    {
      fn parse(&mut self, input: Input) -> IResult<Input, ($($ty),+), Error> {
        Tuple::parse(self, input)
      }
    }
  );
);

tuple_parser!(FnA A, FnB B);
tuple_parser!(FnA A, FnB B, FnC C);
tuple_parser!(FnA A, FnB B, FnC C, FnD D);
tuple_parser!(FnA A, FnB B, FnC C, FnD D, FnE E);
tuple_parser!(FnA A, FnB B, FnC C, FnD D, FnE E, FnF F);
tuple_parser!(FnA A, FnB B, FnC C, FnD D, FnE E, FnF F, FnG G);
tuple_parser!(FnA A, FnB B, FnC C, FnD D, FnE E, FnF F, FnG G, FnH H);
tuple_parser!(FnA A, FnB B, FnC C, FnD D, FnE E, FnF F, FnG G, FnH H, FnI I);
