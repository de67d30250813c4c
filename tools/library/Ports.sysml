library package Ports {
    abstract port def Port :> Objects::Object;
    abstract port ports : Port [0..*] :> Objects::objects;
}
