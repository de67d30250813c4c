library package Parts {
    abstract part def Part :> Items::Item;
    abstract part parts : Part [0..*] :> Items::items;
}
