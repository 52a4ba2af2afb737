import QtQml 2.15
QtObject { property int ä: 1 }
