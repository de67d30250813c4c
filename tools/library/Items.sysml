library package Items {
    abstract item def Item :> Objects::Object;
    abstract item items : Item [0..*] :> Objects::objects;
}
