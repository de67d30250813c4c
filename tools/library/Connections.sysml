library package Connections {
    abstract connection def Connection :> Parts::Part, Links::Link;
    abstract connection connections : Connection [0..*] :> Parts::parts, Links::links;
}
