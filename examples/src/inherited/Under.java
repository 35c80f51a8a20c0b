public class Under extends Sub {
}
