library package Interfaces {
    abstract interface def Interface :> Connections::Connection;
    abstract interface interfaces : Interface [0..*] :> Connections::connections;
}
