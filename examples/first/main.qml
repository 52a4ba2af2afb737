import QtQml 2.15

QtObject {
    property int width: 4
    property int height: 3
    property int area: width * height
    property int room: area - 2 * width + 1
}
