library package ScalarValues {
    abstract datatype ScalarValue :> Base::DataValue;
    datatype Boolean :> ScalarValue;
    datatype String :> ScalarValue;
    abstract datatype NumericalValue :> ScalarValue;
    datatype Real :> NumericalValue;
    datatype Rational :> Real;
    datatype Integer :> Rational;
    datatype Natural :> Integer;
    datatype Positive :> Natural;
}
