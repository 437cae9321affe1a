// What upstream's files import and isn't among them: the library's Option and the module Types, which only names a type
// here.
module Wrappers {
  datatype Option<T> = None | Some(value: T)
}

module Types {
  type TypeName = string
}
