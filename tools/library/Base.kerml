library package Base {
    abstract classifier Anything;
    abstract feature things : Anything [0..*];
    abstract datatype DataValue :> Anything;
    abstract feature dataValues : DataValue [0..*] :> things;
}
